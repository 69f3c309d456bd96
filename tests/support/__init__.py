"""The programs under test as child processes, how a session that fails is shown, libraries in C, and the tests of tools/lint."""

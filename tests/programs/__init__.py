"""Tests of cam6, cam6_draw, cam6_rle, ./look and ./live by their arguments and streams, and of what must not compile."""

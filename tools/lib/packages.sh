# shellcheck shell=bash
# The packages of packages.txt: which ones are missing, and how ./test installs them. A script sources it after head.sh.
#
# A package counts as there if the program, file or module that shows it is there. So another system may have it in its own way.
PACKAGES=${top:?}/packages.txt
# Debian keeps some programs there, which not everybody has on the PATH.
PATH=$PATH:/usr/sbin:/sbin
left_out=()

# The fields of the lines of packages.txt: each line is a package, its part, what shows it, and what it is for.
package_lines() {
  grep -Ev '^ *(#|$)' "$PACKAGES"
}

# By an empty list nothing would be missing.
if ! package_lines > /dev/null; then
  echo "${script:?}: $PACKAGES lists no package" >&2
  exit 2
fi

# The parts that can be left out, by name.
parts() {
  package_lines | awk '$2 != "all" { print $2 }' | LC_ALL=C sort -u
}

# The interpreter of Python whose modules a part needs, with those of the part `all`. It is python3 if that has all of them, or
# else Debian's own, to which the packages belong. For a part other than `all` PYTHON may name another one.
python_of() {
  local modules
  modules=$(package_lines | awk -v part="$1" '($2 == part || $2 == "all") && sub("^import:", "", $3) { print $3 }' | paste -sd ,)
  if [[ $1 != all && -n ${PYTHON-} ]]; then
    echo "$PYTHON"
  elif python3 -c "import $modules" 2> /dev/null; then
    echo python3
  else
    echo /usr/bin/python3
  fi
}

# Whether a package of a part is there, by what shows it.
is_there() {
  local sign signs
  IFS='|' read -ra signs <<< "$1"
  for sign in "${signs[@]}"; do
    case $sign in
      import:*) "$(python_of "$2")" -c "import ${sign#import:}" ;;
      /*) [[ -e $sign ]] ;;
      *) command -v "$sign" ;;
    esac > /dev/null 2>&1 && return
  done
  return 1
}

# Says that what shows a package of a part is missing, and where it was looked for.
lack_of() {
  case $1 in
    import:*) echo "$(python_of "$2") has no module ${1#import:}" ;;
    /*) echo "there is no file $1" ;;
    *) echo "there is no ${1//|/ or } on the PATH" ;;
  esac
}

# Leaves out parts: their names, with commas.
leave_out() {
  local part names
  IFS=, read -ra names <<< "$1"
  for part in "${names[@]}"; do
    parts | grep -qFx -- "$part" || refuse "there is no part '$part'; the parts are $(parts | paste -sd ' ')"
    left_out+=("$part")
  done
}

# Whether a part is left out.
is_left_out() {
  [[ " ${left_out[*]} " == *" $1 "* ]]
}

# Leaves in `missing` the packages that aren't there, but for those of parts that are left out.
find_missing() {
  local package part sign
  missing=()
  while read -r package part sign _; do
    is_left_out "$part" || is_there "$sign" "$part" || missing+=("$package")
  done < <(package_lines)
}

# The lines of packages.txt of what is missing.
missing_lines() {
  package_lines | grep -E "^($(IFS='|'; echo "${missing[*]}")) "
}

# Says how to install what is missing.
say_command() {
  local command="apt-get update && apt-get install -y --no-install-recommends ${missing[*]}"
  if ! command -v apt-get > /dev/null; then
    echo "$script: this system has no apt-get. packages.txt says which program or module of each package is looked for:"
    missing_lines
  elif command -v sudo > /dev/null; then
    echo "sudo sh -c '$command'"
  else
    echo "su -c '$command'"
  fi
} >&2

# Says why what was to be installed is still missing. `uninstalled` has those that can't be installed.
say_why() {
  local package part sign
  while read -r package part sign _; do
    if [[ " ${uninstalled[*]} " == *" $package "* ]]; then
      echo "$script: the package $package can't be installed"
    else
      echo "$script: the package $package is installed, but $(lack_of "$sign" "$part")"
    fi
  done < <(missing_lines)
  echo "$script: the PATH is $PATH"
} >&2

# Says which parts need what is missing, and how ./test leaves them out.
say_parts() {
  local package part out=("${left_out[@]}")
  while read -r package part _; do
    if [[ $part == all ]]; then
      echo "$script: $package is needed whatever parts are left out"
    else
      echo "$script: $package is needed by the part $part"
      out+=("$part")
    fi
  done < <(missing_lines)
  if [[ ${#out[@]} -gt ${#left_out[@]} ]]; then
    echo "$script: './test --without $(printf '%s\n' "${out[@]}" | LC_ALL=C sort -u | paste -sd ,)' leaves these parts out"
  fi
} >&2

# Runs apt-get, in the foreground, so that Ctrl-C ends it. Only its errors are printed.
apt_get() {
  local as=(env DEBIAN_FRONTEND=noninteractive)
  [[ $EUID -eq 0 ]] || as=(sudo -n "${as[@]}")
  "${as[@]}" timeout --foreground 1800 apt-get -qq -o DPkg::Lock::Timeout=120 "$@" < /dev/null > /dev/null
}

# Installs what is missing: all at once, by the lists of packages that are there or by new ones, or else one by one. Leaves in
# `uninstalled` those that can't be installed.
install_missing() {
  local package install=(install -y --no-install-recommends)
  uninstalled=()
  apt_get "${install[@]}" "${missing[@]}" 2> /dev/null && return
  apt_get update || true
  apt_get "${install[@]}" "${missing[@]}" && return
  for package in "${missing[@]}"; do
    apt_get "${install[@]}" "$package" || uninstalled+=("$package")
  done
}

# Whether it may install packages.
may_install() {
  command -v apt-get && { [[ $EUID -eq 0 ]] || sudo -n true; }
} > /dev/null 2>&1

# Sees that all packages are there, but for those of parts that are left out: installs them if it may, or stops the script.
see_packages() {
  local missing uninstalled
  find_missing
  [[ ${#missing[@]} -gt 0 ]] || return 0
  if may_install; then
    echo "$script: installing ${missing[*]}"
    trap 'exit 130' INT
    install_missing
    trap - INT
    find_missing
    [[ ${#missing[@]} -gt 0 ]] || return 0
    say_why
  else
    echo "$script: these packages of packages.txt are missing, and it may not install them: ${missing[*]}" >&2
    say_command
  fi
  say_parts
  exit 2
}

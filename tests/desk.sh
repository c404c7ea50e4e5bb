#!/usr/bin/env bash
# Tries the page, dist/desk.html, in a headless Chromium, in a headless Firefox and in WebKitGTK's small browser, as a
# writer uses it: desk.sh [GROUP..] Before that it tries, under Node alone, what the page asks before it takes a file, and
# undo beside others. Where there is no page, no Node or no browser, it says so and ends with status 0. The environment
# may have:
#
#     DESK         another page
#     BROWSER      chromium, firefox or webkit: that one alone
#     ONLY         a word: only the tests whose names have it are run
#     SHOTS        a folder: pictures are left there
#     SEED         another seed for the random actions
#     SMALL_DISK   a folder on a disk of some 50 MB with nothing else on it: the test with a disk that is really full,
#                  which is left out otherwise
#     DESK_LONG    something: the test of sections of 100,000 letters and more, which is left out otherwise
cd "$(dirname "$0")/.." || exit 1
page=${DESK:-dist/desk.html}

not_tried() {
    echo "not tried, since there is no $1"
    exit 0
}

is_there() {
    command -v "$@" >/dev/null
}

# The folders are those of miniBrowser in tests/desk/webkit.mjs.
has_mini_browser() {
    local folder
    for folder in /usr/lib /usr/libexec '/usr/lib/*'; do
        compgen -G "$folder/webkit*gtk*/MiniBrowser" >/dev/null && return
    done
    return 1
}

# Tries the page in a browser, if it is wanted.
try_in() {
    local browser=$1
    shift
    [ "${BROWSER:-$browser}" = "$browser" ] || return 0
    echo "in $browser"
    BROWSER=$browser DESK=$(realpath "$page") node --no-warnings tests/desk/desk.mjs "$@" || status=1
}

is_there node || not_tried 'node'
node --no-warnings tests/desk/asked.mjs || exit 1
node --no-warnings tests/desk/undone.mjs || exit 1
[ -f "$page" ] || not_tried "$page"
status=0
has_browser=
if is_there chromium || is_there chromium-browser || is_there google-chrome; then
    has_browser=yes
    try_in chromium "$@"
else
    echo 'not tried in Chromium, since there is none'
fi
if is_there firefox || is_there firefox-esr; then
    has_browser=yes
    try_in firefox "$@"
else
    echo 'not tried in Firefox, since there is none'
fi
# Debian's packages webkit2gtk-driver and xvfb, and the library that the first needs, have what this needs.
if is_there WebKitWebDriver && is_there Xvfb && has_mini_browser; then
    has_browser=yes
    try_in webkit "$@"
else
    echo 'not tried in WebKit, since there is none that can be driven'
fi
[ -n "$has_browser" ] || not_tried 'browser'
exit "$status"

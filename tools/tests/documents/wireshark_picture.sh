#!/usr/bin/env bash
# Takes the picture of Wireshark with the comments of a capture: wireshark_picture.sh PICTURE.png
#
# Wireshark runs in an X server of its own (Debian: xvfb, wireshark, xdotool, imagemagick), with a home of its own.
set -euo pipefail
cd "$(dirname "$0")/../../.."

picture=$(realpath -m "$1")
work=$(mktemp -d)
display=:97
xvfb= shark=
trap 'kill $shark $xvfb 2> /dev/null || true; wait; rm -r "$work"' EXIT

until_window() {
    local tries
    for tries in {1..120}; do
        DISPLAY=$display xdotool search --onlyvisible --name "$1" 2> /dev/null | head -n 1 | grep . && return
        sleep 0.5
    done
    echo "no window $1 after $tries tries" >&2
    return 1
}

example=examples/stream_overrun_go
companions/target/release/h2audit-comment "$example.pcap" "$example.report" -o "$work/commented.pcapng"
Xvfb $display -screen 0 1180x680x24 -nolisten tcp > /dev/null 2>&1 &
xvfb=$!
mkdir -p "$work/home/.config/wireshark"
cat > "$work/home/.config/wireshark/preferences" << 'END'
gui.column.format: "No.", "%m", "Time", "%t", "Source", "%s", "Protocol", "%p", "Comment", "%Cus:frame.comment:0:R"
gui.update.enabled: FALSE
gui.layout_type: 1
gui.layout_content_2: DETAILS
gui.layout_content_3: NONE
privs.warn_if_elevated: FALSE
END
HOME=$work/home XDG_CONFIG_HOME=$work/home/.config XDG_RUNTIME_DIR=$work DISPLAY=$display QT_QPA_PLATFORM=xcb \
    wireshark -n -d tcp.port==21100,http2 -r "$work/commented.pcapng" -Y 'frame.comment contains "h2audit"' -g 12 \
    > "$work/said" 2>&1 &
shark=$!
window=$(until_window commented.pcapng)
DISPLAY=$display xdotool windowmove "$window" 0 0 windowsize "$window" 1180 680
sleep 4
# Opens the comments of the packet that is selected.
DISPLAY=$display xdotool mousemove 11 385 click 1
sleep 2
DISPLAY=$display import -window root "$picture"

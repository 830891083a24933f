#!/usr/bin/env python3
"""Makes crates/orca_web/src/page.rt of web/page.html. With --check it says whether they differ instead."""
import base64
import hashlib
import os
import re
import sys

top = os.path.join(os.path.dirname(os.path.abspath(__file__)), "..")
source = os.path.join(top, "web/page.html")
target = os.path.join(top, "crates/orca_web/src/page.rt")
most_bytes = 40_000


def hash_of(page, element):
    """The source by which the policy allows the one element of this name, and no other."""
    (text,) = re.findall(f"<{element}>(.*?)</{element}>", page, re.S)
    return "'sha256-%s'" % base64.b64encode(hashlib.sha256(text.encode()).digest()).decode()


def head_of(page):
    """The head of the answer that gives the page. Nothing but its own script, style and connection is allowed."""
    policy = [
        "default-src 'none'",
        f"script-src {hash_of(page, 'script')}",
        f"style-src {hash_of(page, 'style')}",
        "connect-src 'self'",
        "img-src data:",
        "base-uri 'none'",
        "form-action 'none'",
        "frame-ancestors 'none'",
    ]
    return [
        "HTTP/1.1 200 OK",
        "Content-Type: text/html; charset=utf-8",
        f"Content-Length: {len(page.encode())}",
        "Connection: close",
        "Cache-Control: no-store",
        "Referrer-Policy: no-referrer",
        "X-Content-Type-Options: nosniff",
        f"Content-Security-Policy: {'; '.join(policy)}",
        "",
        "",
    ]


def literal(lines, end):
    """Bytes of these lines as a literal of a source, a line for each. The backslash at the end of a line skips the blanks
    that begin the next one, so its first blank is written as a number. What is not ASCII is written so too."""
    text = []
    for line in lines:
        line = line.replace("\\", "\\\\").replace('"', '\\"')
        line = re.sub(r"^ ", r"\\x20", line)
        text.append("".join(c if c < "\x7f" else "".join(f"\\x{b:02x}" for b in c.encode()) for c in line))
    return 'b"' + (end + "\\\n").join(text) + '"'


def module_of(page):
    return (
        "//! The page that browsers get. `scripts/page.py` makes this file of `web/page.html`.\n\n"
        "/// The head of the answer that gives the page (RFC 9112, section 4).\n"
        f"pub const PAGE_HEAD: &[u8] = {literal(head_of(page), chr(92) + 'r' + chr(92) + 'n')};\n\n"
        "/// The page.\n"
        f"pub const PAGE: &[u8] = {literal(page.split(chr(10)), chr(92) + 'n')};\n"
    )


def main():
    with open(source, encoding="utf-8") as file:
        page = file.read()
    if len(page.encode()) > most_bytes:
        sys.exit(f"web/page.html has more than {most_bytes} bytes")
    module = module_of(page)
    if sys.argv[1:] == ["--check"]:
        with open(target, encoding="utf-8") as file:
            if file.read() != module:
                sys.exit("crates/orca_web/src/page.rt is not what scripts/page.py makes of web/page.html")
        return
    with open(target, "w", encoding="utf-8") as file:
        file.write(module)


main()

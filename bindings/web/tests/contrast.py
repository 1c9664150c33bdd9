#!/usr/bin/env python3
"""Computes the contrast of each pair of text and ground that the page uses, in light and in dark: WCAG 2.2 asks for 4.5."""
import re
import sys
from pathlib import Path

CSS = (Path(__file__).resolve().parents[1] / "page/page.css").read_text(encoding="utf-8")
LEAST = 4.5
KINDS = "universal application context private length string number flag other".split()
PAIRS = [(ink, ground) for ink in ("ink", "dim") for ground in ("paper", "ground", "soft", "select", "bad-soft")]
PAIRS += [(ink, ground) for ink in KINDS for ground in ("paper", "select", "soft")]
PAIRS += [(kind, f"{kind}-soft") for kind in ("good", "warn", "bad")]
PAIRS += [("bad", "paper"), ("bad", "select"), ("paper", "bad"), ("accent-ink", "accent"), ("accent", "paper")]
PAIRS += [("ink", ground) for ground in ("mark", "mark-id", "mark-length")]


def themes(text):
    """The colours in light and in dark, by name."""
    pairs = re.findall(r"--([\w-]+): light-dark\((#[0-9a-f]{6}), (#[0-9a-f]{6})\)", text)
    return [("light", {name: light for name, light, _ in pairs}), ("dark", {name: dark for name, _, dark in pairs})]


def luminance(colour):
    parts = [int(colour[i : i + 2], 16) / 255 for i in (1, 3, 5)]
    red, green, blue = (part / 12.92 if part <= 0.04045 else ((part + 0.055) / 1.055) ** 2.4 for part in parts)
    return 0.2126 * red + 0.7152 * green + 0.0722 * blue


def contrast(one, other):
    high, low = sorted((luminance(one), luminance(other)), reverse=True)
    return (high + 0.05) / (low + 0.05)


def main():
    faults = []
    for name, theme in themes(CSS):
        for ink, ground in PAIRS:
            found = contrast(theme[ink], theme[ground])
            if found < LEAST:
                faults.append(f"{name}: {ink} on {ground} has {found:.2f}")
    print("\n".join([*faults, f"{2 * len(PAIRS)} pairs, {len(faults)} faults"]))
    return bool(faults)


if __name__ == "__main__":
    sys.exit(main())

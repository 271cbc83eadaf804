"""The companion `rtm`: pictures of what rtmrun prints. It computes no rule of the machine."""

from __future__ import annotations

VERSION = "1"

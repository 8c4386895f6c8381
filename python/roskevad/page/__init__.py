# SPDX-License-Identifier: MIT OR Apache-2.0
"""A page to draw on, which is one file, roskevad.html; and a server of it for a folder of this machine.

    python3 -m roskevad.page examples/maps/town.tmj
"""

# SPDX-License-Identifier: MIT OR Apache-2.0
"""What the steps of the page to draw on share."""

# SPDX-License-Identifier: MIT OR Apache-2.0
"""What the steps of the module share: a server of the package and of runs, Node, and the browsers
without a window."""

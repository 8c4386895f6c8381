# SPDX-License-Identifier: MIT OR Apache-2.0
"""How the proved library becomes a WebAssembly module: module.py begins."""

# SPDX-License-Identifier: MIT OR Apache-2.0
"""What the steps share: sessions, refused growths, a plain model of the editor, cases, and the
runner."""

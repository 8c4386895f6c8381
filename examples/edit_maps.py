# SPDX-License-Identifier: MIT OR Apache-2.0
"""What scripts here share that edit maps one after the other. They find the package by it, too."""
import sys
from pathlib import Path
from typing import Callable, Iterable, Union

sys.path.insert(0, str(Path(__file__).resolve().parent.parent / 'python'))

from roskevad import Document, Editor, Error  # noqa: E402


def maps_in(folder: str) -> list[Path]:
    """The maps of a folder, by their names."""
    return sorted(Path(folder).glob('*.tmj'))


def edit_maps(paths: Iterable[Union[str, Path]], edit: Callable[[Document], str]) -> int:
    """Edits each map, and saves it if it has changed; then what `edit` tells of it is printed. A map that is refused, or of which `edit` raises
    ValueError, stays as it is, and is named on standard error. Gives the exit status: 1 where there was such a map, else 0."""
    status = 0
    with Editor() as editor:
        for path in paths:
            # A map that is named by the user keeps that name, one of a folder has that of its file.
            name = path.name if isinstance(path, Path) else path
            try:
                with editor.open(path) as document:
                    told = edit(document)
                    if not document.status.clean:
                        document.save()
                        print(f'{name}: {told}')
            except (Error, ValueError) as fault:
                print(f'{name} stays as it is: {fault}', file=sys.stderr)
                status = 1
    return status

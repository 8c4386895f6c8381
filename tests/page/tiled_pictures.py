# SPDX-License-Identifier: MIT OR Apache-2.0
"""Maps as real Tiled draws them, and the pixels in which the page draws them otherwise. Tiled draws
without smoothing: each pixel is one of an image."""
import base64
import json
import os
import subprocess

# What the page shows where Tiled draws nothing.
COMPARED = '''
const [picture, tolerance, done] = arguments;
const image = new Image();
image.onload = () => {
  const {view} = roskevad, {width, height} = image;
  const pen = new OffscreenCanvas(width, height).getContext("2d", {willReadFrequently: true});
  pen.drawImage(image, 0, 0);
  const background = view.map.data.backgroundcolor?.slice(-6) ?? "5b6068";
  const ground = [0, 2, 4].map(at => parseInt(background.slice(at, at + 2), 16));
  const [across, down] = [view.canvas.width, view.canvas.height];
  const unlike = [], colours = new Set();
  view.scale = 1;
  for (let top = 0; top < height; top += down) for (let left = 0; left < width; left += across) {
    [view.originX, view.originY, view.isWhole] = [-left, -top, true];
    view.draw();
    const [wide, high] = [Math.min(across, width - left), Math.min(down, height - top)];
    const seen = view.pen.getImageData(0, 0, wide, high).data;
    const wanted = pen.getImageData(left, top, wide, high).data;
    for (let at = 0; at < seen.length; at += 4) {
      const alpha = wanted[at + 3] / 255;
      // A picture keeps its colours as shares of their alpha: so they are known the less, the
      // clearer they are.
      const most = alpha === 1 ? tolerance : tolerance + 3;
      const over = part => wanted[at + part] * alpha + ground[part] * (1 - alpha);
      const differs = [0, 1, 2].some(part => Math.abs(seen[at + part] - over(part)) > most);
      colours.add(wanted[at] << 16 | wanted[at + 1] << 8 | wanted[at + 2]);
      if (differs) unlike.push([left + at / 4 % wide, top + Math.floor(at / 4 / wide)]);
    }
  }
  const {projection} = view.map;
  done({
    size: [width, height], drawn: [projection.width, projection.height], colours: colours.size,
    unlike: unlike.slice(0, 5000), count: unlike.length,
  });
};
image.src = "data:image/png;base64," + picture;'''


def picture_of(path):
    """The bytes of the picture that Tiled draws of a map, by its path."""
    picture = path.with_name(f'{path.stem}.picture.png')
    env = {**os.environ, 'QT_QPA_PLATFORM': 'offscreen', 'HOME': str(path.parent)}
    subprocess.run(
        ['tmxrasterizer', '--no-smoothing', path, picture],
        check=True,
        env=env,
        capture_output=True,
        timeout=120,
    )
    data = picture.read_bytes()
    picture.unlink()
    return data


def show(page, path):
    """Opens a map with all tilesets and images beside it, and waits until these are there."""
    others = [each for each in path.parent.iterdir() if each.suffix in ('.tsx', '.tsj', '.png')]
    page.choose_files(*sorted(others), path)
    page.wait(
        lambda: page.js(
            'const {editor, tilesets, view} = roskevad;'
            'if (!editor.map || tilesets.said === "[]") return false;'
            'for (const layer of editor.map.layers) view.images.of(layer);'
            'const {all, missing} = view.images;'
            'return tilesets.all.length === editor.map.data.tilesets.length'
            '  && [...all].every(([path, image]) => image || missing.has(path))'
        ),
        'the tilesets are there',
    )
    page.settle()


def compared(page, path, tolerance=0):
    """Where the page draws a map otherwise than Tiled: the sizes of both pictures, how many colours
    Tiled's has, and the pixels that are unlike, of which 5,000 are listed."""
    picture = base64.b64encode(picture_of(path)).decode()
    show(page, path)
    told = page.driver.execute_async_script(COMPARED, picture, tolerance)
    assert told['size'] == told['drawn'], told['size'] + told['drawn']
    return told


def without_outlines(told):
    """A map, without the objects of which Tiled draws an outline."""
    for layer in told['layers']:
        if 'objects' in layer:
            layer['objects'] = [each for each in layer['objects'] if 'gid' in each]
        if 'layers' in layer:
            without_outlines(layer)
    return told


def put(path, told):
    path.write_text(json.dumps(told))
    return path

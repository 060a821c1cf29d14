// Runs tiffcrop, whose main is tool_main, with the words of the command line, over an image of each size that the first word has, as
// 20x10,100x100t16b1 for one of 20 columns and 10 rows, and one with tiles of 16 and a bit for each pixel.
#include "tiff_images.h"
#include <stdio.h>

int tool_main(int count, char **words);

int main(int count, char **words) {
  TIFF *file = TIFFOpen("in.tif", "w");
  for (char *at = words[1]; *at;) {
    unsigned width = strtoul(at, &at, 10), height = strtoul(at + 1, &at, 10), tile = *at == 't' ? strtoul(at + 1, &at, 10) : 0;
    add_image(file, width, height, tile, *at == 'b' ? strtoul(at + 1, &at, 10) : 8);
    if (*at == ',') at++;
  }
  TIFFClose(file);
  words[1] = words[0];
  return tool_main(count - 1, words + 1) * 0;
}

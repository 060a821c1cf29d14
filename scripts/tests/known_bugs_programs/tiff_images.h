// Writes images for the programs beside this file.
#include "tiffio.h"
#include <stdlib.h>

static void add_image(TIFF *file, unsigned width, unsigned height, unsigned tile, unsigned bits) {
  TIFFSetField(file, TIFFTAG_IMAGEWIDTH, width);
  TIFFSetField(file, TIFFTAG_IMAGELENGTH, height);
  TIFFSetField(file, TIFFTAG_BITSPERSAMPLE, bits);
  TIFFSetField(file, TIFFTAG_SAMPLESPERPIXEL, 1);
  TIFFSetField(file, TIFFTAG_PHOTOMETRIC, PHOTOMETRIC_MINISBLACK);
  TIFFSetField(file, TIFFTAG_PLANARCONFIG, PLANARCONFIG_CONTIG);
  if (tile) {
    TIFFSetField(file, TIFFTAG_TILEWIDTH, tile);
    TIFFSetField(file, TIFFTAG_TILELENGTH, tile);
    unsigned char *bytes = calloc(tile, tile * 2);
    for (unsigned y = 0; y < height; y += tile)
      for (unsigned x = 0; x < width; x += tile) TIFFWriteTile(file, bytes, x, y, 0, 0);
    free(bytes);
  } else {
    TIFFSetField(file, TIFFTAG_ROWSPERSTRIP, 8);
    unsigned char *row = calloc(width, 2);
    for (unsigned y = 0; y < height; y++) TIFFWriteScanline(file, row, y, 0);
    free(row);
  }
  TIFFWriteDirectory(file);
}

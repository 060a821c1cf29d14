// A copy of an image fails at its map of colours, whose size is no power of two.
#include "gif_lib.h"
#include <stdlib.h>

int main(void) {
  static GifFileType file;
  SavedImage *image = GifMakeSavedImage(&file, NULL);
  image->ImageDesc.Width = image->ImageDesc.Height = 8;
  image->RasterBits = calloc(64, 1);
  image->ImageDesc.ColorMap = GifMakeMapObject(4, NULL);
  image->ImageDesc.ColorMap->ColorCount = 3;
  SavedImage from = *image;
  GifMakeSavedImage(&file, &from);
  GifFreeSavedImages(&file);
  return 0;
}

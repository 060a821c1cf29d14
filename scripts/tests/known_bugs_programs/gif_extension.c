// A graphics control block is written to an extension of one byte.
#include "gif_lib.h"
#include <stdlib.h>

int main(void) {
  static ExtensionBlock block = {.Function = GRAPHICS_EXT_FUNC_CODE, .ByteCount = 1};
  static SavedImage image = {.ExtensionBlockCount = 1, .ExtensionBlocks = &block};
  static GifFileType file = {.ImageCount = 1, .SavedImages = &image};
  static const GraphicsControlBlock control = {.DisposalMode = DISPOSE_DO_NOT, .DelayTime = 7, .TransparentColor = 3};
  block.Bytes = malloc(1);
  EGifGCBToSavedExtension(&control, &file, 0);
  free(block.Bytes);
  return 0;
}

// A buffer is told to have fewer bytes than none, and the next buffer begins before its block.
#include "expat.h"
#include <string.h>

int main(void) {
  XML_Parser parser = XML_ParserCreate(NULL);
  memcpy(XML_GetBuffer(parser, 64), "<a>", 3);
  XML_ParseBuffer(parser, 3, 0);
  XML_GetBuffer(parser, 64);
  XML_ParseBuffer(parser, -50, 0);
  char *next = XML_GetBuffer(parser, 64);
  if (next) memcpy(next, "</a>", 4);
  XML_ParserFree(parser);
  return 0;
}

// An empty name at the end of a block is looked up.
#include <libxml/xmlstring.h>
#include <libxml/dict.h>
#include <stdlib.h>

int main(void) {
  xmlDictPtr names = xmlDictCreate();
  xmlChar *text = malloc(16);
  xmlDictLookup(names, text + 16, 0);
  free(text);
  xmlDictFree(names);
  return 0;
}

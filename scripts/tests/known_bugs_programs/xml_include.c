// An XInclude whose n-th request of memory fails, for each n.
#include <libxml/parser.h>
#include <libxml/xinclude.h>
#include <stdlib.h>
#include <string.h>

static int left = -1;
static int fails(void) { return left >= 0 && left-- == 0; }
static void *take(size_t size) { return fails() ? NULL : malloc(size); }
static void *resize(void *block, size_t size) { return fails() ? NULL : realloc(block, size); }
static char *copy(const char *text) { return fails() ? NULL : strdup(text); }
static void silent(void *context, const char *format, ...) { (void)context, (void)format; }

int main(void) {
  static const char text[] = "<a xmlns:xi='http://www.w3.org/2001/XInclude'><xi:include href='none.xml' parse='text'/></a>";
  xmlMemSetup(free, take, resize, copy);
  xmlInitParser();
  xmlSetGenericErrorFunc(NULL, silent);
  for (int at = 0; at < 60; at++) {
    xmlDocPtr document = xmlReadMemory(text, sizeof text - 1, "here.xml", NULL, XML_PARSE_NOERROR);
    left = at;
    xmlXIncludeProcessFlags(document, XML_PARSE_NOERROR);
    left = -1;
    xmlFreeDoc(document);
  }
  xmlCleanupParser();
  return 0;
}

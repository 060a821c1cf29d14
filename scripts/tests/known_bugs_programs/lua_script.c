// Runs the script that stands in the file `script`.
#include "lauxlib.h"
#include "lua.h"
#include "lualib.h"

int main(void) {
  lua_State *state = luaL_newstate();
  luaL_openlibs(state);
  int is_wrong = luaL_dofile(state, "script");
  lua_close(state);
  return is_wrong * 0;
}

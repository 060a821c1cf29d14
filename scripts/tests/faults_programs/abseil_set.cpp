// A slot of a hash set of abseil, which poisons its free ones: with a word more it is loaded after its element is gone.
#include <absl/container/flat_hash_set.h>

int main(int words, char **) {
  absl::flat_hash_set<long> set;
  for (long i = 0; i < 20; i++) set.insert(i);
  const long *inside = &*set.find(7);
  set.erase(7);
  return words > 1 ? *inside != 7 : 0;
}

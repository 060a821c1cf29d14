#include <cstdio>
#include <random>
#include <unordered_map>
#include <vector>
// vectors that grow by doubling, as those of most programs: a graph's lists of neighbours
int main() {
  std::mt19937 d(7);
  std::vector<std::vector<long>> lists(3000);
  for (long n = 0; n < 6000000; n++) lists[d() % 3000 * (d() % 3000) / 3000].push_back(n);
  std::unordered_map<long, std::vector<double>> rows;
  for (long n = 0; n < 800; n++) rows[n].resize(2048 << n % 3, 1.0);
  long all = 0;
  for (auto &each : lists) all += each.size();
  printf("%ld %zu\n", all, rows.size());
}

// Runs xmllint, whose main is tool_main, with the words of the command line.
int tool_main(int count, char **words);

int main(int count, char **words) {
  tool_main(count, words);
  return 0;
}

// A race: all branches add to one plain variable. An update is lost where two of them read before one of them writes.
int main() {
  int sum = 0;
  parfor (int i = 1; i <= 3; i++)
    sum += i;
  return sum;
}

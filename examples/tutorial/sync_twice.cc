// A sync variable is assigned once. Whichever branch comes second is at fault.
int main() {
  sync int answer;
  par { answer = 1; answer = 2; }
  return answer;
}

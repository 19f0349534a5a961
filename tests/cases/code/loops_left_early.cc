int main(int n) {
  while (n) {
    for (int i = 0; i < n; i++) {
      if (i == 1) continue;
      while (1) { if (i) break; else continue; }
      break;
    }
    if (n == 2) continue;
    for (;;) { break; }
    break;
  }
  par {
    while (n) { continue; }
    ;
  }
  parfor (int j = 0; j < n; j++) for (;; n++) { if (j) continue; break; }
  return n;
}

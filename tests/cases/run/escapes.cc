int main() { cout << "tab\tquote\"back\\" << endl << ""; return 2 * 3 * 7 - 50; }

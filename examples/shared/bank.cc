// Money goes to and fro between accounts, each on a processor of its own. A withdrawal that an account cannot meet is
// refused, so which ones are made is not fixed; but what all accounts have together is.
// Ints: none. Breaks AtomicUsed. Answer: 400, the sum over all accounts.
const int ACCOUNTS = 4;
const int ROUNDS = 5;

global class Account {
public:
  int balance;
  Account(int money) { balance = money; }
  atomic int withdraw(int money) {
    if (balance < money) return 0;
    balance = balance - money;
    return money;
  }
  atomic void deposit(int money) { balance = balance + money; }
};

int main() {
  Account *global account[ACCOUNTS];
  for (int i = 0; i < ACCOUNTS; i++) account[i] = new Account(100);
  parfor (int i = 0; i < ACCOUNTS; i++)
    for (int round = 1; round <= ROUNDS; round++) {
      int money = account[i]->withdraw(40);
      account[(i + round) % ACCOUNTS]->deposit(money);
    }
  int sum = 0;
  for (int i = 0; i < ACCOUNTS; i++) sum += account[i]->balance;
  cout << sum << endl;
  return sum;
}

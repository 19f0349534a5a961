// An atomic function has its object for itself. So no other deposit comes between the read and the write of the
// balance.
class Account {
public:
  int balance;
  atomic void deposit(int money) { balance = balance + money; }
};

int main() {
  Account account;
  parfor (int i = 1; i <= 4; i++) account.deposit(10 * i);
  cout << account.balance << endl;
  return account.balance;
}

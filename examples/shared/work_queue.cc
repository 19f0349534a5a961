// A work queue: workers on processors of their own take the next task when they are done with one. Who does which task
// is not fixed; each task is done once.
// Ints: none. Breaks AtomicUsed. Answer: 2870, the sum of the squares from 1 to 20, in every order.
const int TASKS = 20;
const int WORKERS = 3;

global class Queue {
public:
  int taken;
  int sum;
  // The next task, and 0 where there is none.
  atomic int take() {
    if (taken == TASKS) return 0;
    taken = taken + 1;
    return taken;
  }
  atomic void done(int result) { sum = sum + result; }
};

global class Worker {
public:
  void work(Queue *global queue) {
    int task = queue->take();
    while (task != 0) {
      queue->done(task * task);
      task = queue->take();
    }
  }
};

int main() {
  Queue *global queue = new Queue();
  parfor (int i = 0; i < WORKERS; i++) {
    Worker *global worker = new Worker();
    worker->work(queue);
  }
  cout << queue->sum << endl;
  return queue->sum;
}

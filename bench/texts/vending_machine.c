/* A vending machine: three columns of goods, a purse of coins, and change in
   the coin tube. Amounts are counted in units of five cents. */

extern int __VERIFIER_nondet_int(void);
extern void assume(int);
extern void assert(int);

int stock_a, stock_b, stock_c;   /* pieces in each column */
int purse;                       /* what the customer has put in */
int cash;                        /* what the box holds */
int tube;                        /* coins of one unit for change */
int sold;                        /* pieces sold since the last service */
int errors;                      /* refusals since the last service */

/* The price of a column. */
int price(int column) {
  if (column == 1) return 12;
  if (column == 2) return 20;
  return 30;
}

/* The pieces in a column. */
int stock(int column) {
  if (column == 1) return stock_a;
  if (column == 2) return stock_b;
  return stock_c;
}

/* A coin is put in; coins of other values fall through. */
void insert(int coin) {
  if (coin == 1) {
    purse++;
    if (tube < 80) tube++; else cash++;
  } else if (coin == 2 || coin == 4 || coin == 10 || coin == 20) {
    purse += coin;
    cash += coin;
  } else {
    errors++;
  }
}

/* One piece of a column falls. */
void drop(int column) {
  if (column == 1) stock_a--;
  else if (column == 2) stock_b--;
  else stock_c--;
  sold++;
}

/* Change goes out as coins of one unit; what is not paid stays in the purse. */
int pay_out(int amount) {
  int paid = 0;
  while (paid < amount && tube > 0) {
    tube--;
    paid++;
  }
  return paid;
}

/* A choice is made: a piece where the column has one and the purse is full
   enough, and then the change. */
int choose(int column) {
  int cost = price(column);
  int left = stock(column);
  int back = 0;
  if (left <= 0 || purse < cost) {
    errors++;
    return 0;
  }
  drop(column);
  purse -= cost;
  back = pay_out(purse);
  assert(back <= purse);
  purse -= back;
  return 1;
}

/* The customer presses the lever for returned coins. */
void give_back(void) {
  int back = pay_out(purse);
  purse -= back;
  if (purse > 0 && cash >= purse) {
    cash -= purse;
    purse = 0;
  }
}

/* One customer: some coins, a choice or two, and the lever. */
int customer(int patience) {
  int bought = 0;
  int t = 0;
  for (t = 0; t < patience; t++) {
    int key = __VERIFIER_nondet_int();
    if (key <= 20) insert(key);
    else if (key == 21) bought += choose(1);
    else if (key == 22) bought += choose(2);
    else if (key == 23) bought += choose(3);
    else break;
  }
  give_back();
  assert(t >= 0);
  return bought;
}

/* The columns are filled, and the box is emptied. */
void service(int a, int b, int c) {
  if (a > 0 && stock_a + a <= 15) stock_a += a;
  if (b > 0 && stock_b + b <= 15) stock_b += b;
  if (c > 0 && stock_c + c <= 10) stock_c += c;
  cash = 0;
  while (tube < 40) tube++;
  sold = 0;
  errors = 0;
}

/* A day of customers between two services. */
int day(int customers) {
  int bought = 0;
  int n = customers;
  while (n > 0) {
    int patience = __VERIFIER_nondet_int();
    assume(patience >= 0 && patience <= 30);
    bought += customer(patience);
    n--;
  }
  assert(bought >= 0);
  return bought;
}

int main(void) {
  int days = __VERIFIER_nondet_int();
  int total = 0;
  assume(days >= 0);
  while (days > 0) {
    int visitors = __VERIFIER_nondet_int();
    assume(visitors >= 0);
    service(15, 15, 10);
    assert(tube >= 40);
    total += day(visitors);
    days--;
  }
  assert(total >= 0);
  assert(sold >= 0);
  return 0;
}

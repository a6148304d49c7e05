/* A token with allowances among an owner, a shop, a pool and all the others.
   Accounts are 1 to 4; every other number is the burn address. */

extern int __VERIFIER_nondet_int(void);
extern void assume(int);
extern void assert(int);

int supply;                         /* all tokens there are */
int owner, shop, pool, others;      /* balances */
int shop_allowed, pool_allowed;     /* what each may spend for the owner */
int paused;                         /* 1 while transfers are stopped */
int fees;                           /* fees that wait to be collected */

int balance_of(int account) {
  if (account == 1) return owner;
  if (account == 2) return shop;
  if (account == 3) return pool;
  if (account == 4) return others;
  return 0;
}

void credit(int account, int amount) {
  if (account == 1) owner += amount;
  else if (account == 2) shop += amount;
  else if (account == 3) pool += amount;
  else if (account == 4) others += amount;
  else supply -= amount;
}

void debit(int account, int amount) {
  if (account == 1) owner -= amount;
  else if (account == 2) shop -= amount;
  else if (account == 3) pool -= amount;
  else if (account == 4) others -= amount;
}

/* New tokens go to the owner, up to a cap. */
int mint(int amount) {
  if (paused != 0 || amount <= 0) return 0;
  if (supply + amount > 1000000) return 0;
  supply += amount;
  owner += amount;
  return amount;
}

/* Tokens of an account are destroyed. */
int burn(int account, int amount) {
  int held = balance_of(account);
  if (amount <= 0 || held < amount) return 0;
  debit(account, amount);
  supply -= amount;
  return amount;
}

/* The fee of a transfer: one in a hundred, at least 1 and at most 50. */
int fee_of(int amount) {
  int fee = amount / 100;
  if (fee < 1) fee = 1;
  if (fee > 50) fee = 50;
  return fee;
}

int transfer(int from, int to, int amount) {
  int held = balance_of(from);
  int fee = 0;
  if (paused != 0 || amount <= 0) return 0;
  fee = fee_of(amount);
  assert(fee >= 1 && fee <= 50);
  if (held < amount + fee) return 0;
  debit(from, amount + fee);
  credit(to, amount);
  fees += fee;
  return 1;
}

/* The owner lets the shop or the pool spend; an allowance is replaced. */
void approve(int spender, int amount) {
  if (amount < 0) return;
  if (spender == 2) shop_allowed = amount;
  else if (spender == 3) pool_allowed = amount;
}

/* A spender moves tokens of the owner within its allowance. */
int spend(int spender, int to, int amount) {
  int done = 0;
  if (spender == 2 && shop_allowed >= amount) {
    done = transfer(1, to, amount);
    if (done == 1) shop_allowed -= amount;
  } else if (spender == 3 && pool_allowed >= amount) {
    done = transfer(1, to, amount);
    if (done == 1) pool_allowed -= amount;
  }
  return done;
}

/* Fees go to the pool in parts of at most 1000. */
int collect(void) {
  int rounds = 0;
  while (fees > 0) {
    int part = fees;
    if (part > 1000) part = 1000;
    fees -= part;
    pool += part;
    rounds++;
  }
  assert(fees <= 0);
  return rounds;
}

/* A payment in parts, each with its own fee. */
int instalments(int to, int parts, int amount) {
  int paid = 0;
  int k = 0;
  while (k < parts) {
    int done = transfer(4, to, amount);
    if (done == 0) break;
    paid += amount;
    k++;
  }
  assert(parts < 0 || k <= parts);
  return paid;
}

int main(void) {
  int steps = __VERIFIER_nondet_int();
  int minted = mint(100000);
  assume(steps >= 0);
  assert(minted == 100000);
  assert(owner == supply);
  while (steps > 0) {
    int what = __VERIFIER_nondet_int();
    int to = __VERIFIER_nondet_int();
    int amount = __VERIFIER_nondet_int();
    if (what == 0) minted += mint(amount);
    else if (what == 1) transfer(1, to, amount);
    else if (what == 2) approve(to, amount);
    else if (what == 3) spend(2, to, amount);
    else if (what == 4) instalments(to, 12, amount);
    else if (what == 5) minted -= burn(to, amount);
    else if (what == 6) collect();
    else paused = 1 - paused;
    steps--;
  }
  assert(shop_allowed >= 0);
  assert(fees >= 0);
  return 0;
}

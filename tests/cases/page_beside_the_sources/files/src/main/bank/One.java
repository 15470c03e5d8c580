class One {
  int x;
}

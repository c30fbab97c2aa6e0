int main(void) { int x = 0; //@ assert p: x >= 0;
//@ assert q: x <= 9;
return 0; }

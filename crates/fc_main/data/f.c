int main(void) { int x = 5; //@ assert a: x < 10;
return 0; }

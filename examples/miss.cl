real_main(){
  int v;
  out("x", 7);
  inp("x", ?v);
  printf("%d\n", v);
  inp("x", ?v);
  printf("%d\n", v);
}

int main(void){int x; x=1; return x;}

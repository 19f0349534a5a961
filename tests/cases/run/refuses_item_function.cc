int 5() { }

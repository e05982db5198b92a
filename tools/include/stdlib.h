_Noreturn void exit(int status);

/* Stands for Android's libc.so when libseg2jni.so is linked: the names that its own has, and no more. */
void memset(void) {}
void memcpy(void) {}
void memmove(void) {}
void memcmp(void) {}

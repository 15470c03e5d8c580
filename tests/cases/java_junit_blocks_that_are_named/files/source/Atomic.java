@interface Atomic { }

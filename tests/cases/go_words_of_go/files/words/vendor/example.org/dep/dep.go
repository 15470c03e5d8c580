package dep

var asked int

func Name() string { asked++; return "vendored" }

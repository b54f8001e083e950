PROOF main
forward;
forward;
cancel;
QED

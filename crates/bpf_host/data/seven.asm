; returns 7
mov64 r0, 7
exit

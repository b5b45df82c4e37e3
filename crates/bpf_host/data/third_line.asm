; returns 7
mov64 r0, 7
mov9 r0, 7
exit

/* getc and putc without a call, where the buffer has the byte or room for it. */
#define fast_getc(file) ((file)->count > 0 ? ((file)->count--, (int)*(file)->next++) : getc(file))
#define fast_putc(c, file) \
	((file)->count > 1 && (file)->count < BUFSIZ ? ((file)->count--, (int)(*(file)->next++ = (c))) : putc(c, file))

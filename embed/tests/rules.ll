define i32 @shift(i32 %x) {
  %s = add nsw i32 %x, %x
  %m = mul i32 2, %s
  ret i32 %m
}

define i8 @frozen(i8 %x, i8 noundef %y) {
  %m = mul i8 %x, 3
  %n = mul i8 %y, 3
  %r = xor i8 %m, %n
  ret i8 %r
}

define i16 @orders(i16 %x, i16 %y) {
  %o = or i16 %y, %x
  %a = and i16 %x, %y
  %s = add i16 %o, %a
  ret i16 %s
}

define i1 @swapped(i32 %x, i32 %y) {
  %c = icmp sgt i32 %x, %y
  %n = xor i1 true, %c
  ret i1 %n
}

define i64 @taken(i64 %x, i64 %y) {
  %p = mul nsw i64 %x, %y
  %q = sub i64 %p, 0
  %d = ashr exact i64 %q, 1
  ret i64 %d
}

define i64 @another_width(i64 %x) {
  %s = add i64 %x, %x
  %m = mul i64 2, %s
  ret i64 %m
}

define i64 @no_flag(i64 %x, i64 %y) {
  %p = mul nsw i64 %x, %y
  %q = sub i64 %p, 0
  %d = ashr i64 %q, 1
  ret i64 %d
}

define i16 @another_value(i16 %x, i16 %y) {
  %o = or i16 %x, %y
  %a = and i16 %x, %x
  %s = add i16 %o, %a
  ret i16 %s
}

define i32 @shift(i32 %x) {
  %1 = shl i32 %x, 2
  ret i32 %1
}

define i8 @frozen(i8 %x, i8 noundef %y) {
  %1 = freeze i8 %x
  %2 = shl i8 %1, 1
  %3 = add i8 %2, %1
  %4 = shl i8 %y, 1
  %5 = add i8 %4, %y
  %r = xor i8 %3, %5
  ret i8 %r
}

define i16 @orders(i16 %x, i16 %y) {
  %1 = add i16 %x, %y
  ret i16 %1
}

define i1 @swapped(i32 %x, i32 %y) {
  %1 = icmp sle i32 %x, %y
  ret i1 %1
}

define i64 @taken(i64 %x, i64 %y) {
  %p = mul nsw i64 %x, %y
  %1 = ashr i64 %p, 1
  ret i64 %1
}

define i64 @another_width(i64 %x) {
  %s = add i64 %x, %x
  %m = mul i64 2, %s
  ret i64 %m
}

define i64 @no_flag(i64 %x, i64 %y) {
  %p = mul nsw i64 %x, %y
  %q = sub i64 %p, 0
  %d = ashr i64 %q, 1
  ret i64 %d
}

define i16 @another_value(i16 %x, i16 %y) {
  %o = or i16 %x, %y
  %a = and i16 %x, %x
  %s = add i16 %o, %a
  ret i16 %s
}

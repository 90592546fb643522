declare i32 @llvm.cttz.i32(i32, i1)
define i32 @f(i32 %x, i8 %y, i1 %c) {
entry:
  %s = add nsw i32 %x, %x
  %g = icmp sgt i32 %s, 7
  br i1 %g, label %a, label %b
a:
  %z = zext i8 %y to i32
  %m = mul nuw nsw i32 %z, -2
  br label %b
b:
  %p = phi i32 [ %s, %entry ], [ %m, %a ]
  %t = call i32 @llvm.cttz.i32(i32 %p, i1 true)
  %q = select i1 %c, i32 %t, i32 undef
  %w = zext i32 %q to i128
  %v = xor i128 %w, 170141183460469231731687303715884105728
  %u = lshr exact i128 %v, 340282366920938463463374607431768211455
  %r = trunc i128 %u to i32
  ret i32 %r
dead:
  %d = add i32 %d, 1
  br label %dead
}

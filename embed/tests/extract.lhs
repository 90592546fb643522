; left-hand sides of the function f; path conditions are left out
;  %s = add nsw i32 %x, %x
%0:i32 = var
%1:i32 = addnsw %0, %0
infer %1

;  %g = icmp sgt i32 %s, 7
%0:i32 = var
%1:i32 = addnsw %0, %0
%2:i1 = slt 7:i32, %1
infer %2

;  %z = zext i8 %y to i32
%0:i8 = var
%1:i32 = zext %0
infer %1

;  %m = mul nuw nsw i32 %z, -2
%0:i8 = var
%1:i32 = zext %0
%2:i32 = mulnw %1, -2:i32
infer %2

;  %t = call i32 @llvm.cttz.i32(i32 %p, i1 true)
%0:i32 = var
%1:i32 = cttz %0
infer %1

;  %q = select i1 %c, i32 %t, i32 undef
%0:i1 = var
%1:i32 = var
%2:i32 = cttz %1
%3:i32 = var
%4:i32 = select %0, %2, %3
infer %4

;  %w = zext i32 %q to i128
%0:i1 = var
%1:i32 = var
%2:i32 = cttz %1
%3:i32 = var
%4:i32 = select %0, %2, %3
%5:i128 = zext %4
infer %5

;  %v = xor i128 %w, -170141183460469231731687303715884105728
%0:i1 = var
%1:i32 = var
%2:i32 = cttz %1
%3:i32 = var
%4:i32 = select %0, %2, %3
%5:i128 = zext %4
%6:i128 = xor %5, -170141183460469231731687303715884105728:i128
infer %6

;  %u = lshr exact i128 %v, -1
%0:i1 = var
%1:i32 = var
%2:i32 = cttz %1
%3:i32 = var
%4:i32 = select %0, %2, %3
%5:i128 = zext %4
%6:i128 = xor %5, -170141183460469231731687303715884105728:i128
%7:i128 = lshrexact %6, -1:i128
infer %7

;  %r = trunc i128 %u to i32
%0:i1 = var
%1:i32 = var
%2:i32 = cttz %1
%3:i32 = var
%4:i32 = select %0, %2, %3
%5:i128 = zext %4
%6:i128 = xor %5, -170141183460469231731687303715884105728:i128
%7:i128 = lshrexact %6, -1:i128
%8:i32 = trunc %7
infer %8


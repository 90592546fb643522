; the last item has a block as its root
%x = var
%y = add %x, %x
infer %y

%x = var
%unneeded = mul %x, 2
infer %x

%b = block 0
infer %b

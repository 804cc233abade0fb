module: dylan-user

define library l export m0 end;
define module m0 create a, b end;
define module m1 use m0, prefix: "x-", export: all end;

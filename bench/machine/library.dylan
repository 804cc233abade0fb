module: dylan-user

define library machine use dylan; use io; end;
define module machine use dylan; use format-out; end;

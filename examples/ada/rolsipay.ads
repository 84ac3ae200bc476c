--  A thin binding of rolsipay.h, which says what each call does, what a caller must ensure, and what platform and stack the calls need. Its constants
--  have the header's names and values; the limits are Max_ here, and refusal 3 is Out_Of_Range, since `range` is a word of Ada.
with Interfaces; use Interfaces;
with Interfaces.C;
with System;

package Rolsipay is

   --  The version of this binding. The library carries none: take both from one dist/.
   Version : constant := 10_501;

   --  The most stack that a call takes, in bytes: Read; Release, Report and Finish, each.
   Stack_Read : constant := 86_016;
   Stack_Call : constant := 14_336;

   Max_Text      : constant := 65_536;
   Max_Leaves    : constant := 512;
   Max_Functions : constant := 16;
   Max_Brackets  : constant := 64;
   Max_Levels    : constant := 32;
   Max_Rounds    : constant := 65_535;
   Max_Cost      : constant := 1_048_576;
   Max_Time      : constant := 1_099_511_627_776;

   --  The words of a reply. Resume is said by an end, and in edition 2 by a report.
   Refused : constant := 0;
   Go      : constant := 1;
   Suspend : constant := 2;
   Stay    : constant := 3;
   Resume  : constant := 4;
   Ended   : constant := 5;

   --  The numbers of refusals.
   Oversize     : constant := 1;
   Form         : constant := 2;
   Out_Of_Range : constant := 3;
   Count        : constant := 4;
   Load         : constant := 5;
   Target       : constant := 6;
   Depth        : constant := 7;
   Unseen       : constant := 8;
   Uncalled     : constant := 9;
   Long         : constant := 10;
   Broken       : constant := 11;
   Busy         : constant := 12;
   Unfit        : constant := 13;
   Idle         : constant := 14;
   Stranger     : constant := 15;
   Backward     : constant := 16;
   Astray       : constant := 17;
   Costless     : constant := 19;

   --  The layout that the library was compiled for: every component below has 64 bits or is an array of such, and the sizes of the records are the sums of
   --  their components' sizes, so that the compiler refuses to pad one; convention C keeps the order.
   pragma Compile_Time_Error (Interfaces.C.size_t'Size /= 64, "the library has a size_t of 64 bits");

   type Numbers is array (Natural range <>) of Unsigned_64 with Convention => C, Component_Size => 64;

   type Leaf is record
      Kind, Point, Isolated, Max_Load, Detail, Other, After, Level, Turn, Tail, Max_Load_Turn : Unsigned_64 := 0;
   end record with Convention => C, Size => 88 * 8;

   type Leaves is array (Natural range <>) of aliased Leaf with Convention => C;

   type Head_Record is record
      Deadline, Switching, Edition, Resuming, Total, Max_Load_Total : Unsigned_64 := 0;
      Leaves, Functions                                             : Interfaces.C.size_t := 0;
      Bounds                                                        : Numbers (0 .. Max_Functions) := (others => 0);
      Totals, Max_Load_Totals                                       : Numbers (1 .. Max_Functions) := (others => 0);
   end record with Convention => C, Size => 456 * 8;

   --  A fresh state is all zeros.
   type State_Record is record
      Running, Suspended, Reading, Level : Unsigned_64 := 0;
      Leaves, Earlier, Times             : Numbers (0 .. Max_Levels) := (others => 0);
   end record with Convention => C, Size => 824 * 8;

   type Ruling is record
      Number, Line : Unsigned_64;
   end record with Convention => C, Size => 16 * 8;

   type Reply is record
      Word, Number, Remaining : Unsigned_64;
      Margin                  : Integer_64;
      Late                    : Unsigned_64;
   end record with Convention => C, Size => 40 * 8;

   function Read
     (Text : System.Address; Bytes : Interfaces.C.size_t; Row : System.Address; Records : Interfaces.C.size_t;
      Head : not null access Head_Record) return Ruling
   with Import, Convention => C, External_Name => "rolsipay_read";

   function Release
     (Row   : System.Address; Records : Interfaces.C.size_t; Head : not null access constant Head_Record;
      State : not null access State_Record) return Reply
   with Import, Convention => C, External_Name => "rolsipay_release";

   function Report
     (Row   : System.Address; Records : Interfaces.C.size_t; Head : not null access constant Head_Record;
      State : not null access State_Record; Point, Reading : Unsigned_64) return Reply
   with Import, Convention => C, External_Name => "rolsipay_report";

   function Finish
     (Row   : System.Address; Records : Interfaces.C.size_t; Head : not null access constant Head_Record;
      State : not null access State_Record; Reading : Unsigned_64) return Reply
   with Import, Convention => C, External_Name => "rolsipay_end";

end Rolsipay;

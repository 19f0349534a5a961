class C { public: int a; private: int b; };

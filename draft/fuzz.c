#include "dp.h"
#include <stdio.h>
#include <stdlib.h>
#include <string.h>
static uint32_t seed=7; static uint32_t rnd(uint32_t n){seed=seed*1664525u+1013904223u;return (seed>>8)%n;}
#define N 2048
static uint8_t big[N+1024]; 
int main(void){ uint8_t cfg[1]={1}; uint8_t ch[32]={8,6,10,4,4,20}; ch[30]=240;ch[31]=240; uint8_t*m=big+512; long well=0,tries=0,respd=0,odd=0;
 memset(big,0x77,sizeof big);
 if(dp_start(m,N,5,0x80b3,1,1,10,4,10,cfg,1,ch,32)) return 1; 
 /* limits */
 static uint8_t s0[N]; memcpy(s0,m,N);
 for(int o=0;o<194;o++){ int ok=0,max=-1,contig=1; for(int v=0;v<256;v++){ memcpy(m,s0,N); m[o]=v; int w=dp_events(m,N)>=0; if(w){ok++; if(max!=v-1&&max!=-1)contig=0; max=v;} } if(o==18||o==54||o==68||o==69||o==70||o==160||o==161||o==163||o==176||o==178||o==192) printf("octet %d: %d values, most %d\n",o,ok,max); }
 for(int run=0;run<200000;run++){ memcpy(m,s0,N); int k=1+rnd(30); while(k--){ int o=rnd(3)?rnd(70):128+rnd(64); static const uint8_t lim[]={3,10,10,3,126,2,23,11,5,5,7,15,1,7,3,12}; uint8_t v=rnd(256); if(o>=16&&o<32) v=rnd(lim[o-16]+1); if(o>=48&&o<54) continue; if(o==54) v=rnd(22); if(o==55) v=rnd(128); if(o>=56&&o<64) continue; if(o>=128&&o<160) continue; if(o>=160) v=rnd(6); if(o==14||o==32) v=rnd(30); if(o==15||o==33) v=rnd(10); if(o==68&&rnd(2)) v=rnd(16); m[o]=v; } 
  if(rnd(3)==0){ m[18]=10; m[17]=rnd(10); m[14]=2+rnd(20); m[15]=m[17]==7?rnd(m[14]+1):0; m[16]=1; }
  tries++; if(dp_events(m,N)<0) continue; well++; 
  for(int c=0;c<40;c++){ int w=rnd(9); if(w==0) dp_gap(m,N); else if(w==1) dp_tick(m,N); else if(w==2){ if(m[18]==10&&m[17]<10){respd++; if(m[68]>15) odd++;} dp_send(m,N);} else if(w==3) dp_judge_parameters(m,N,rnd(2)); else if(w==4) dp_channel_read(m,N,rnd(18),rnd(10)); else if(w==5){uint8_t r[250]; memset(r,1,250); dp_channel_respond(m,N,rnd(18),r,rnd(8));} else if(w==6){ dp_gap(m,N); uint8_t f[]={0x68,0,0,0x68,0x85,0x82,(uint8_t)(0x4C|(rnd(4)<<4)),(uint8_t)rnd(18),(uint8_t)rnd(53),0,0,0,0,0,0,0,0,0}; int n=rnd(5); f[1]=f[2]=5+n; for(int i=0;i<n;i++) f[9+i]=rnd(256); uint8_t sm=0; for(int i=4;i<9+n;i++) sm+=f[i]; f[9+n]=sm; f[10+n]=0x16; if(rnd(2)) m[0]=2; for(int i=0;i<11+n;i++) dp_octet(m,N,f[i],0);} else if(w==7) dp_octet(m,N,rnd(256),0); else dp_leave_master(m,N);
   if(dp_events(m,N)<0){ printf("damaged by %d run %d\n",w,run); return 1;} }
  for(size_t i=0;i<512;i++) if(big[i]!=0x77||big[512+N+i]!=0x77){printf("outside\n");return 1;}
 }
 printf("tries %ld well %ld response sends %ld with channel above 15 %ld\n",tries,well,respd,odd); return 0; }
